      IADD(M,N)=M+N
      I=IADD(1)
      END
