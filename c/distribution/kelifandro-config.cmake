# find_package(kelifandro) gives the target kelifandro::kelifandro: the library of the processor
# that KELIFANDRO_PROCESSOR names, one of lib/*, or of the one that CMake builds for. Where there is
# none, or KELIFANDRO_FROM_SOURCE is set, it is built of src/*.c, by the project's own compiler and
# flags.
get_filename_component(kelifandro_top "${CMAKE_CURRENT_LIST_DIR}/../../.." ABSOLUTE)
if(NOT KELIFANDRO_PROCESSOR)
    set(KELIFANDRO_PROCESSOR "${CMAKE_SYSTEM_PROCESSOR}")
    if(KELIFANDRO_PROCESSOR MATCHES "^i.86$")
        set(KELIFANDRO_PROCESSOR i386)
    elseif(KELIFANDRO_PROCESSOR MATCHES "^armv7")
        set(KELIFANDRO_PROCESSOR armv7a)
    endif()
endif()
set(kelifandro_library "${kelifandro_top}/lib/${KELIFANDRO_PROCESSOR}/libkelifandro.a")
if(NOT TARGET kelifandro::kelifandro)
    if(KELIFANDRO_FROM_SOURCE OR NOT EXISTS "${kelifandro_library}")
        set(kelifandro_files kelifandro.c kelifandro_core.c kelifandro_queue.c kelifandro_queue_core.c)
        list(TRANSFORM kelifandro_files PREPEND "${kelifandro_top}/src/")
        add_library(kelifandro STATIC ${kelifandro_files})
        target_include_directories(kelifandro PUBLIC "${kelifandro_top}/include")
        target_compile_options(kelifandro PRIVATE -ffunction-sections -fdata-sections)
        add_library(kelifandro::kelifandro ALIAS kelifandro)
        message(STATUS "kelifandro: built of its C files")
    else()
        add_library(kelifandro::kelifandro STATIC IMPORTED)
        set_target_properties(kelifandro::kelifandro PROPERTIES
            IMPORTED_LOCATION "${kelifandro_library}"
            INTERFACE_INCLUDE_DIRECTORIES "${kelifandro_top}/include")
        message(STATUS "kelifandro: lib/${KELIFANDRO_PROCESSOR}")
    endif()
endif()
set(kelifandro_FOUND TRUE)
