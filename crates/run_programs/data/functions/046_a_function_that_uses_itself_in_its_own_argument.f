      IACK(M,N)=M+IACK(M,N-1)
      I=IACK(1,2)
      END
