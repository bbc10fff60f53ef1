# Jumps at the last word of a page. The slot is on a page that the buffer lacks, so the unit takes 12 instructions more: the
# jump and the fetch of its slot, which misses, the nine words, which find the page of the table in the buffer, and the jump again.
first: .space 4092
jal first
