# find_package(upsched): the targets upsched::upsched, the codec, the scheduler and the modem, and upsched::node, a node.
# Both are static libraries, with the headers for C and C++. This file is in PREFIX/lib/cmake/upsched.
get_filename_component(upsched_prefix "${CMAKE_CURRENT_LIST_DIR}/../../.." ABSOLUTE)
foreach(upsched_pair "upsched=libupsched.a" "node=libupsched_node.a")
  string(REPLACE "=" ";" upsched_pair "${upsched_pair}")
  list(GET upsched_pair 0 upsched_name)
  list(GET upsched_pair 1 upsched_file)
  if(NOT TARGET upsched::${upsched_name})
    if(NOT EXISTS "${upsched_prefix}/lib/${upsched_file}")
      set(upsched_FOUND FALSE)
      set(upsched_NOT_FOUND_MESSAGE "there is no ${upsched_prefix}/lib/${upsched_file}")
      return()
    endif()
    add_library(upsched::${upsched_name} STATIC IMPORTED)
    set_target_properties(upsched::${upsched_name} PROPERTIES
      IMPORTED_LOCATION "${upsched_prefix}/lib/${upsched_file}"
      IMPORTED_LINK_INTERFACE_LANGUAGES C
      INTERFACE_INCLUDE_DIRECTORIES "${upsched_prefix}/include")
  endif()
endforeach()
