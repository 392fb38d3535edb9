A list is reversed
---
Three numbers go into a list, the list is turned around and printed. It should print 1, 2, 3, and prints 2, 3.

Each call is shown with the list before and after it.
