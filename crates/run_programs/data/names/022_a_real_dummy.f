      ISUM(A,B)=A+B
      END
