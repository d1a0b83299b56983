      i m p l i c i t   N o N e
      integer x
      x=3
      write (6,10) x
   10 format (i2)
      end
