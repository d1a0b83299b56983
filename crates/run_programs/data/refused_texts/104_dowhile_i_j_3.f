      DOWHILE(I)(J)=3
      END
