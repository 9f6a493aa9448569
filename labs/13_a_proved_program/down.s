# down.s - is to take 1 from the counter of hundred.s again and again: write it

again:  j    again
