# fish completion for gqlsdl, written by tools/completions
complete -c gqlsdl -f -l sorted-fields -d 'fields of objects, interfaces and inputs by name'
complete -c gqlsdl -f -l sorted-arguments -d 'arguments of fields by name'
complete -c gqlsdl -f -l sorted-enum-items -d 'values of enums by name'
complete -c gqlsdl -f -l single-line -d 'a description of one line on a single line'
complete -c gqlsdl -f -l indent -x -d 'an indent of N spaces, 0 to 255, in place of a tab'
complete -c gqlsdl -f -l sample -x -d 'read nothing; publish a sample of N types, 1 to 20,000'
