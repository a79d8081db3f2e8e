command  device  what happened to picture 4
4        camera  made camera:2 in its out: its filter 'rating >= 3' doesn't select rating 1 day 2026-07-02 words blurred
6        server  was handed camera:2 by camera, into its store
6        camera  handed camera:2 over to server
7        hall    learned of camera:2, without its contents, from server: its filter 'rating >= 4' doesn't select rating 1 day 2026-07-02 words blurred
8        tablet  learned of camera:2, without its contents, from server: its filter '( rating >= 2 and not keyword private )' doesn't select rating 1 day 2026-07-02 words blurred
20       phone   took camera:2 from server

who lacks a current version, and why:
  camera  camera:2  its filter 'rating >= 3' doesn't select rating 1 day 2026-07-02 words blurred; handed camera:2 over in 6
  hall    camera:2  its filter 'rating = 5' doesn't select rating 1 day 2026-07-02 words blurred
  tablet  camera:2  its filter '( rating >= 2 and not keyword private )' doesn't select rating 1 day 2026-07-02 words blurred
