# There is one processor, whatever machine this is.
nproc
uname -sm
