      d o i = 1 , 3
      Do 1 0 J=1,2
      k=k+i*j
 1 0  e n d d o
      e N   D dO
      write (6,20) i,j,k
   20 format (3i4)
      end
