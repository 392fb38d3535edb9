Four numbers are sorted
---
It should print 10, 20, 30, 40, and prints 10, 30, 40, 20.
