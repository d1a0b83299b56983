      IADD(M,N)=M+N
      ITWO(N)=IADD(N,N,N)
      END
