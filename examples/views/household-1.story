command  device  what happened to picture 1
1        phone   made phone:1 in its store: rating 5 day 2026-07-01 words beach
5        server  took phone:1 from phone
7        hall    took phone:1 from server
8        tablet  took phone:1 from server
11       server  made server:1 in its store: rating 5 day 2026-07-01 words beach,private
11       server  gave up phone:1: server:1 supersedes it
12       tablet  was told of server:1, without its contents, by server: its filter '( rating >= 2 and not keyword private )' doesn't select rating 5 day 2026-07-01 words beach,private
12       tablet  gave up phone:1: server:1 supersedes it
20       phone   took server:1 from server
20       phone   gave up phone:1: server:1 supersedes it
22       phone   made phone:4 in its out: no filter selects a removal
22       phone   gave up server:1: phone:4 supersedes it
23       server  was handed phone:4 by phone, into its out: no filter selects a removal
23       server  gave up server:1: phone:4 supersedes it
23       phone   handed phone:4 over to server
24       hall    was handed phone:4 by server, into its out: no filter selects a removal
24       hall    learned of server:1, without its contents, from server: phone:4 supersedes it
24       hall    gave up phone:1: phone:4 supersedes it
24       server  handed phone:4 over to hall

who lacks a current version, and why:
  phone   phone:4  no filter selects a removal; handed phone:4 over in 23
  camera  phone:4  doesn't know of it
  server  phone:4  no filter selects a removal; handed phone:4 over in 24
  tablet  phone:4  doesn't know of it; gave up phone:1 in 12
