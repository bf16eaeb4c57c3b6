# Two rooms of a house. The client sets what their thermometers read.
input kitchen = 18; # degrees
input cellar = 12;

# Each output shows one input. The transcript keeps the second one hidden.
text in_kitchen { input$kitchen }
text in_cellar { input$cellar }
