      IA(N)=N+M
      IB(M)=IA(1)*M
      M=100
      WRITE (6,10) IB(2)
   10 FORMAT (I4)
      END
