"""The commands: the words of each, and what it prints. `copperfinch.command` calls them."""
