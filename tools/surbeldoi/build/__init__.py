"""How a program that plays scenes is made, and watched while it runs."""
