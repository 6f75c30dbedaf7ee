# find_package(pairing) gives the target pairing::pairing. All places are relative to this file, so that an installed tree
# can be moved.
if(NOT TARGET pairing::pairing)
  get_filename_component(_pairing_prefix "${CMAKE_CURRENT_LIST_DIR}/../../.." ABSOLUTE)
  add_library(pairing::pairing STATIC IMPORTED)
  set_target_properties(pairing::pairing PROPERTIES
    IMPORTED_LOCATION "${_pairing_prefix}/lib/libpairing.a"
    IMPORTED_LINK_INTERFACE_LANGUAGES C
    INTERFACE_INCLUDE_DIRECTORIES "${_pairing_prefix}/include"
    INTERFACE_COMPILE_FEATURES cxx_std_17)
  unset(_pairing_prefix)
endif()
