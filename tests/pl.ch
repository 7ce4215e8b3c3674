@x
@p program pl(pool,output);
@y
@p program listpool(pool,output);
@z
