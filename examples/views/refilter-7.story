command  device  what happened to picture 7
1        s       made s:1 in its store: rating 2 day 2024-01-01 words -
3        f       learned of s:1, without its contents, from s: its filter 'rating >= 4' doesn't select rating 2 day 2024-01-01 words -
4        f       forgot s:1: its next epoch knows only what it holds
7        f       took s:1 from s
8        f       made f.1:1 in its store: rating 3 day 2024-01-01 words -
8        f       gave up s:1: f.1:1 supersedes it
11       s       took f.1:1 from f
11       s       gave up s:1: f.1:1 supersedes it
13       f       moved f.1:1 to its out: its filter 'rating >= 4' doesn't select rating 3 day 2024-01-01 words -

each device has each current version
