"""Inputs on which the program and its model are compared; all are made from a random generator that is handed in."""
