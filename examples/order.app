# Outputs run in the order of the file, and stand in the values text in the byte order of their names.
text second { input$b }
text first { input$a }

# An item may be used before it stands in the file.
input a = 1;
input b = 2;
