module arena/careful

go 1.19
