declare ptr @heap_new(i64)
declare ptr @heap_resize(ptr, i64)
declare void @heap_free(ptr)
define { i64, i64 } @rattle_alloc(i64 %n, i64 %a) {
  %z = icmp eq i64 %n, 0
  %m = select i1 %z, i64 %a, i64 %n
  %p = call ptr @heap_new(i64 %m)
  %ok = icmp ne ptr %p, null
  %o = zext i1 %ok to i64
  %i = ptrtoint ptr %p to i64
  %r0 = insertvalue { i64, i64 } undef, i64 %o, 0
  %r1 = insertvalue { i64, i64 } %r0, i64 %i, 1
  ret { i64, i64 } %r1
}
define { i64, i64 } @rattle_realloc(ptr %b, i64 %kept, i64 %n, i64 %a) {
  %z = icmp eq i64 %n, 0
  %m = select i1 %z, i64 %a, i64 %n
  %p = call ptr @heap_resize(ptr %b, i64 %m)
  %ok = icmp ne ptr %p, null
  %o = zext i1 %ok to i64
  %i = ptrtoint ptr %p to i64
  %r0 = insertvalue { i64, i64 } undef, i64 %o, 0
  %r1 = insertvalue { i64, i64 } %r0, i64 %i, 1
  ret { i64, i64 } %r1
}
define void @rattle_dealloc(ptr %p) {
  call void @heap_free(ptr %p)
  ret void
}
