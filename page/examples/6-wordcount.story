Words are counted
---
The program counts the words of its input, which has six, and finds four.

A word ends at a blank, or where the line ends.
