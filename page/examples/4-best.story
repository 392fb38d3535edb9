The best of three marks
---
The pupil with the best mark is printed. It should be Ada, with 17, and is Blaise, with 9.
