"""The front: what `./gvr` adds to the proved program in words, help and views of a trace. Nothing of it is proved, and
nothing of it changes what the program writes."""
