nodes 3
submit 2 9 1 claim plotter hall
send 0 2 0 request 9.1 claim plotter hall
send 1 2 1 request 9.1 claim plotter hall
take 2
mark 2
send 2 2 1 estimate 0 1 0 9.1 claim plotter hall
hear 0 0
take 0
hear 1 1
hear 1 2
take 1
submit 1 8 1 claim scanner
send 3 1 0 request 8.1 claim scanner
send 4 1 2 request 8.1 claim scanner
hear 0 3
hear 2 4
take 2
mark 2
send 5 2 1 estimate 1 1 0 8.1 claim scanner
hear 1 5
mark 0
send 6 0 1 estimate 0 1 0 9.1 claim plotter hall
take 0
hear 1 6
mark 1
send 7 1 1 estimate 0 1 0 9.1 claim plotter hall
hear 1 7
take 1
mark 0
send 8 0 1 estimate 1 1 0 8.1 claim scanner
hear 1 8
mark 1
send 9 1 1 estimate 1 1 0 8.1 claim scanner
send 10 1 0 proposal 0 1 9.1 claim plotter hall
send 11 1 1 proposal 0 1 9.1 claim plotter hall
send 12 1 2 proposal 0 1 9.1 claim plotter hall
hear 2 12
take 2
hear 0 10
take 0
hear 1 9
hear 1 11
take 1
submit 0 7 1 claim printer room-4
send 13 0 1 request 7.1 claim printer room-4
send 14 0 2 request 7.1 claim printer room-4
hear 1 13
hear 2 14
mark 2
send 15 2 1 ack 0 1
mark 1
send 16 1 0 proposal 1 1 8.1 claim scanner
send 17 1 1 proposal 1 1 8.1 claim scanner
send 18 1 2 proposal 1 1 8.1 claim scanner
send 19 1 1 ack 0 1
hear 1 15
hear 1 17
hear 1 19
take 1
hear 2 18
take 2
hear 0 16
mark 0
send 20 0 1 ack 0 1
take 0
hear 1 20
mark 2
send 21 2 1 estimate 2 1 0 7.1 claim printer room-4
send 22 2 1 ack 1 1
mark 1
send 23 1 1 estimate 2 1 0 7.1 claim printer room-4
send 24 1 1 ack 1 1
send 25 1 0 decision 0 9.1 claim plotter hall
send 26 1 2 decision 0 9.1 claim plotter hall
hear 2 26
take 2
hear 1 21
hear 1 22
hear 1 23
hear 1 24
take 1
hear 0 25
mark 0
send 27 0 1 estimate 2 1 0 7.1 claim printer room-4
send 28 0 1 ack 1 1
take 0
hear 1 27
hear 1 28
mark 1
send 29 1 0 proposal 2 1 7.1 claim printer room-4
send 30 1 1 proposal 2 1 7.1 claim printer room-4
send 31 1 2 proposal 2 1 7.1 claim printer room-4
send 32 1 0 decision 1 8.1 claim scanner
send 33 1 2 decision 1 8.1 claim scanner
ack 1 8.1 claimed
hear 0 29
hear 0 32
hear 2 31
hear 2 33
hear 1 30
take 1
mark 2
send 34 2 0 decision 0 9.1 claim plotter hall
send 35 2 1 decision 0 9.1 claim plotter hall
hear 0 34
ack 2 9.1 claimed
hear 1 35
take 2
submit 2 9 2 release plotter
send 36 2 0 request 9.2 release plotter
send 37 2 1 request 9.2 release plotter
hear 0 36
hear 1 37
mark 0
send 38 0 1 decision 0 9.1 claim plotter hall
send 39 0 2 decision 0 9.1 claim plotter hall
hear 1 38
take 0
hear 2 39
mark 2
send 40 2 1 ack 2 1
send 41 2 0 decision 1 8.1 claim scanner
send 42 2 1 decision 1 8.1 claim scanner
mark 1
send 43 1 1 ack 2 1
hear 1 40
hear 1 42
hear 1 43
take 1
take 2
hear 0 41
mark 0
send 44 0 1 ack 2 1
send 45 0 1 decision 1 8.1 claim scanner
send 46 0 2 decision 1 8.1 claim scanner
send 47 0 1 estimate 3 1 0 9.2 release plotter
hear 1 44
hear 1 45
hear 1 47
hear 2 46
mark 1
send 48 1 1 estimate 3 1 0 9.2 release plotter
send 49 1 0 decision 2 7.1 claim printer room-4
send 50 1 2 decision 2 7.1 claim printer room-4
hear 0 49
take 0
hear 1 48
take 1
hear 2 50
mark 2
send 51 2 1 estimate 3 1 0 9.2 release plotter
hear 1 51
take 2
mark 1
send 52 1 0 proposal 3 1 9.2 release plotter
send 53 1 1 proposal 3 1 9.2 release plotter
send 54 1 2 proposal 3 1 9.2 release plotter
mark 0
hear 1 53
take 1
send 55 0 1 decision 2 7.1 claim printer room-4
send 56 0 2 decision 2 7.1 claim printer room-4
hear 0 52
take 0
hear 1 55
ack 0 7.1 claimed
hear 2 54
hear 2 56
mark 2
send 57 2 0 decision 2 7.1 claim printer room-4
send 58 2 1 decision 2 7.1 claim printer room-4
hear 0 57
hear 1 58
take 2
mark 0
send 59 0 1 ack 3 1
hear 1 59
mark 1
send 60 1 1 ack 3 1
hear 1 60
take 1
mark 2
send 61 2 1 ack 3 1
hear 1 61
mark 1
send 62 1 0 decision 3 9.2 release plotter
send 63 1 2 decision 3 9.2 release plotter
hear 0 62
take 0
hear 2 63
take 2
mark 2
send 64 2 0 decision 3 9.2 release plotter
send 65 2 1 decision 3 9.2 release plotter
hear 0 64
ack 2 9.2 released
hear 1 65
