"""The commands of pedx, a module for each. Each module has a function that answers the text that is printed."""
