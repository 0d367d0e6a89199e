# Completion of gdbm_dump for fish: an option, and names of files.
complete -c gdbm_dump -s H -l format -x -a 'ascii binary' -d 'The form of the dump'
