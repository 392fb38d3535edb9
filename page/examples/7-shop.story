A shop that breaks off
---
A shop opens and sells two loaves. The program breaks off: a variable has no value.

Where it breaks off is not where the mistake is.
