"""The program `ngc` at work: started, asked, over copies, and what it answers."""
