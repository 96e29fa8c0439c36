module burtxeltz

go 1.19
