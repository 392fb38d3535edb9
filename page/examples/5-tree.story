A sorted tree is turned around
---
Three numbers go into a sorted tree, and are printed from the greatest to the smallest. It should print 30, 20, 10, and prints 30, 20, 30.

Each call is shown with the tree before and after it.
