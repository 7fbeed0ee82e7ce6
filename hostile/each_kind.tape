nodes 3
submit 0 7 1 claim a-0 x~
tick 0
suspect 1 02
advance 2
take 0
mark 0
send 0 0 1 estimate 0 1 0 7.1 claim a-0 x~
hear 1 0
submit 1 4294967295 18446744073709551615 update a-0
submit 2 8 3 transfer a 9
take 1
mark 1
send 1 1 0 proposal 1048575 2147483647 7.1 release a-0
send 2 1 0 ack 0 1
send 3 1 2 decision 0 8.3 transfer a 9
send 4 0 2 request 8.3 transfer a 9
send 5 0 1 nack 0 1
send 6 2 1 beat
send 7 2 1 suspects 12
send 8 2 1 ask 0
ack 0 7.1 claimed
ack 1 8.3 taken 4294967295
ack 2 8.3 notowner
