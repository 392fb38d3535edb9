A number is taken out of a tree
---
Five numbers go into a sorted tree, and 30 is taken out. It should print 20, 40, 50, 70, and prints 20, 50, 70.

The card of the wrong call looks right. Look also at what that call did not look at.
