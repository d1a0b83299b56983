      IF(I)(J)=3
      END
