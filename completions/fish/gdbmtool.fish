# Completion of gdbmtool for fish: options, and names of files.
complete -c gdbmtool -s b -l block-size -x -d 'The block size of files that are made'
complete -c gdbmtool -s c -l cache-size -x -d 'How many buckets may be kept in memory'
complete -c gdbmtool -s r -l read-only -d 'Open the file to read'
complete -c gdbmtool -s n -l newdb -d 'Make the file anew'
complete -c gdbmtool -s x -l extended -d 'Files that are made have the numsync format'
complete -c gdbmtool -s N -l norc -d 'Nothing'
complete -c gdbmtool -s q -l quiet -d 'Nothing'
