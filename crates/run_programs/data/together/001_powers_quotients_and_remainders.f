      WRITE (6,10) 2**(-3),-7/2,MOD(-7,2),2**3**2
   10 FORMAT (4I5)
      END
