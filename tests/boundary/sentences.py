"""Prints number and sentence of every refusal that the Python module names, and of some that it does not, with a second
number of 0 and with another.
"""

import cession

for number in range(1, 32):
    for second in (0, 3):
        refused = cession.refused(number, second)
        print(f"{refused.number}: {refused}")
