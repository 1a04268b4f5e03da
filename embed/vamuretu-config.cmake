# What find_package(vamuretu) gives: the static libraries vamuretu::sm_embed and vamuretu::sm_node, each with the heap, and the
# shared ones vamuretu::sm_embed_shared and vamuretu::sm_node_shared. This file lies in lib/cmake/vamuretu of a prefix.
get_filename_component(_vamuretu "${CMAKE_CURRENT_LIST_DIR}/../../.." ABSOLUTE)

if(NOT TARGET vamuretu::heap)
  add_library(vamuretu::heap STATIC IMPORTED)
  set_target_properties(vamuretu::heap PROPERTIES IMPORTED_LOCATION "${_vamuretu}/lib/libsm_embed_heap.a")
  foreach(_name sm_embed sm_node)
    add_library(vamuretu::${_name} STATIC IMPORTED)
    set_target_properties(vamuretu::${_name} PROPERTIES
      IMPORTED_LOCATION "${_vamuretu}/lib/lib${_name}.a"
      INTERFACE_INCLUDE_DIRECTORIES "${_vamuretu}/include"
      INTERFACE_LINK_LIBRARIES vamuretu::heap)
    add_library(vamuretu::${_name}_shared SHARED IMPORTED)
    set_target_properties(vamuretu::${_name}_shared PROPERTIES
      IMPORTED_LOCATION "${_vamuretu}/lib/lib${_name}.so"
      INTERFACE_INCLUDE_DIRECTORIES "${_vamuretu}/include")
  endforeach()
endif()
unset(_vamuretu)
