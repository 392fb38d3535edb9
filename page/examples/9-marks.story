One wrong value of three
---
Three pupils get points in a lesson. Ann should come to 8, Bob to 3 and Cleo to 12. Only Cleo's number is wrong.

Do not judge what was done for Ann and Bob: press `lesson` among the calls, and there "wrong" beside cleo.
