"""What the tools beside this folder share: they ask the program `ido` and show what it answers."""
