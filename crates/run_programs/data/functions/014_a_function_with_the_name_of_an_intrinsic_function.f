      MOD(I,J)=I*J
      WRITE (6,10) MOD(5,3)
   10 FORMAT (I3)
      END
