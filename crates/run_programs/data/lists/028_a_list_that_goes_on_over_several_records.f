      WRITE (6,10) (I,I*I,I=1,5)
   10 FORMAT ('SQUARES',2(I3,' IS',I4)/)
      END
