      A(I)(J)=3
      END
