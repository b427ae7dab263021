cts 2
period 13
cycle 1
setup G6 G6 13
path 5 G6 G8 G16 G9 G11
registers 3
G5 2 0 2
G6 0 0 3
G7 0 6 2
lead 1 setup G6 G5 15
lead 0
lead 0
merges 2
3 0 1 2 pair G5 G6
4 2 3 4 pair G5 G7
source 15 sink G7
nodes 5
0 0 0 4 2 4 0 0 0
1 4 2 2 2 4 0 4 2
2 10 0 4 2 6 0 10 0
3 4 0 2 2 6 0 4 0
4 6 0 11 3 5 10 6 10 6 0
wire 23
