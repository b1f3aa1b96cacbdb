# cmake -P names.cmake: leaves hashes out of the names of sections in OBJECT, and names of local symbols. They depend on
# the folder that cargo built it in. In rustc's newer form, v0, so do offsets within a name, which begin with a B.
execute_process(COMMAND "${OBJDUMP}" -h -w "${OBJECT}" OUTPUT_VARIABLE sections COMMAND_ERROR_IS_FATAL ANY)
set(hash "17h[0-9a-f]+E|Lanon\\.[0-9a-f]+|Cs[0-9A-Za-z]+_")
string(REGEX MATCHALL "\\.[^ \n]*(${hash})[^ \n]*" hashed "${sections}")
foreach(name ${hashed})
    string(REGEX REPLACE "${hash}|B[0-9A-Za-z]*_" "" plain "${name}")
    list(APPEND renamed --rename-section "${name}=${plain}")
endforeach()
execute_process(COMMAND "${OBJCOPY}" -x -w -N "const_oid_c.*" ${renamed} "${OBJECT}" COMMAND_ERROR_IS_FATAL ANY)
