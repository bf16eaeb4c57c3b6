input n = 1;
text o { input$n }
