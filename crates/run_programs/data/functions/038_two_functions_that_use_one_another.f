      IODD(N)=IEVEN(N-1)
      IEVEN(N)=IODD(N-1)
      END
