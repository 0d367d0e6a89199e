# Completion of gdbm_load for fish: options, and names of files.
complete -c gdbm_load -s b -l block-size -x -d 'The block size of a new file'
complete -c gdbm_load -s c -l cache-size -x -d 'How many buckets may be kept in memory'
complete -c gdbm_load -s n -l no-meta -d 'Nothing'
complete -c gdbm_load -s r -l replace -d 'Records take the place of older ones'
complete -c gdbm_load -s U -l update -d 'Keep the database that is there'
