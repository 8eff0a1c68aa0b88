if(NOT TARGET mbelaguy::mbelaguy)
  add_library(mbelaguy::mbelaguy STATIC IMPORTED)
  set_target_properties(mbelaguy::mbelaguy PROPERTIES
    IMPORTED_LOCATION "${CMAKE_CURRENT_LIST_DIR}/libmbelaguy.a"
    INTERFACE_INCLUDE_DIRECTORIES "${CMAKE_CURRENT_LIST_DIR}")
endif()
