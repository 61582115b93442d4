"""What the commands of tools/ share: the rules of kpart, evaluated over whole lists, and what is compared with them."""
