# Jorghipa @VERSION@: the targets jorghipa::jorghipa, of jorghipa.h, and jorghipa::records, of jorghipa_records.h.
get_filename_component(_jorghipa_prefix "${CMAKE_CURRENT_LIST_DIR}/../../.." ABSOLUTE)

function(_jorghipa_archive target archive)
  if(NOT TARGET ${target})
    add_library(${target} STATIC IMPORTED)
    set_target_properties(${target} PROPERTIES
      IMPORTED_LOCATION "${_jorghipa_prefix}/lib/${archive}"
      IMPORTED_LINK_INTERFACE_LANGUAGES C
      INTERFACE_INCLUDE_DIRECTORIES "${_jorghipa_prefix}/include")
  endif()
endfunction()

_jorghipa_archive(jorghipa::jorghipa libcapi.a)
_jorghipa_archive(jorghipa::records librecords.a)
unset(_jorghipa_prefix)
