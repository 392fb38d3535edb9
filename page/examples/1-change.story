Change for a machine
---
`seventy` should add 70 to coins, and does not.

The machine has 50 and 20 cent pieces. Which procedure is wrong?
